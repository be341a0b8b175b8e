"""Texts as they may be typed, good and bad, written down by hand from the words of request Q-10.

In a bad text a bar stands where the first bad or missing line starts; it is no part of the text."""
from candidates import *
from texts import text_of

# drawing D, section by section
FIRST = "drawing 1 6 3 2\n"
PLACES = "plain\natomic\n"
ACTIONS = "store 0 0 0\nastore 0 1 relaxed 0\nstore 1 0 1\nastore 1 1 release 1\naload 2 1 relaxed 1\nload 2 0 0\n"
EDGES = "sb 0 1\nsb 2 3\nsb 4 5\nasw 1 2\nasw 1 4\nrf 0 5\nrf 3 4\nmo 1 3\n"
D = FIRST + PLACES + ACTIONS + EDGES + "end\n"
K = "drawing 1 2 1 1\nplain\nload 0 0 5\nstore 0 0 5\nsb 1 0\nrf 1 0\nend\n"
# twelve fences, six of each of two threads
FENCES = "drawing 1 12 2 0\n" + "fence 0 relaxed\n" * 6 + "fence 1 relaxed\n" * 6

# where N, T and P are 6, 3 and 2
FIRST_LINES = {
    "other_word": "drawings 1 6 3 2",
    "upper_case": "Drawing 1 6 3 2",
    "no_word": "1 6 3 2",
    "empty": "",
    "edition_0": "drawing 0 6 3 2",
    "edition_3": "drawing 3 6 3 2",
    "edition_past_32_bits": "drawing 4294967297 6 3 2",
    "edition_past_64_bits": "drawing 18446744073709551617 6 3 2",
    "n_129": "drawing 1 129 3 2",
    "n_past_16_bits": "drawing 1 65542 3 2",
    "t_17": "drawing 1 6 17 2",
    "t_past_16_bits": "drawing 1 6 65539 2",
    "p_65": "drawing 1 6 3 65",
    "p_past_16_bits": "drawing 1 6 3 65538",
    "zero_before_edition": "drawing 01 6 3 2",
    "zero_before_n": "drawing 1 06 3 2",
    "zero_before_t": "drawing 1 6 03 2",
    "zero_before_p": "drawing 1 6 3 02",
    "five_numbers": "drawing 1 6 3 2 0",
    "three_numbers": "drawing 1 6 3",
    "no_numbers": "drawing",
    "plus": "drawing +1 6 3 2",
    "tab": "drawing\t1 6 3 2",
    "cr": "drawing 1 6 3 2\r",
    "two_spaces": "drawing 1  6 3 2",
    "space_before": " drawing 1 6 3 2",
    "space_after": "drawing 1 6 3 2 ",
    "nul": "drawing 1 6 3 2\0",
}
# what is said of N, T and P is not what follows
SIZES = {
    "n_too_low": "drawing 1 1 1 1\nplain\nstore 0 0 0\n|store 0 0 1\nsb 0 1\nend\n",
    "n_too_high": "drawing 1 3 1 1\nplain\nstore 0 0 0\nstore 0 0 1\n|sb 0 1\nend\n",
    "n_0": "drawing 1 0 1 1\nplain\n|store 0 0 0\nend\n",
    "n_0_and_an_edge": "drawing 1 0 0 0\n|sb 0 0\nend\n",
    "t_0": "drawing 1 1 0 1\nplain\n|store 0 0 0\nend\n",
    "t_too_low": "drawing 1 2 1 1\nplain\nstore 0 0 0\n|store 1 0 0\nend\n",
    "p_0": "drawing 1 1 1 0\n|store 0 0 0\nend\n",
    "p_too_low": "drawing 1 1 1 1\nplain\n|atomic\nstore 0 0 0\nend\n",
    "p_too_high": "drawing 1 1 1 3\nplain\natomic\n|store 0 0 0\nend\n",
    "end_for_a_place": "drawing 1 0 0 1\n|end\n",
    "end_for_an_action": "drawing 1 1 1 0\n|end\n",
    "edge_for_a_place": FIRST + "|sb 0 1\n" + PLACES + ACTIONS + "end\n",
}
# the first place of D
PLACE_LINES = {
    "other_word": "volatile",
    "upper_case": "Plain",
    "letter_more": "plains",
    "letter_less": "plai",
    "by_number": "1",
    "two_words": "plain 0",
    "empty": "",
    "space_before": " plain",
    "space_after": "plain ",
    "cr": "plain\r",
}
# an action of two threads; place 0 is a mutex, 1 plain, 2 atomic
ACTION_LINES = {
    "lock_more": "lock 1 0 0",
    "lock_less": "lock 1",
    "unlock_more": "unlock 1 0 0",
    "unlock_less": "unlock 1",
    "aload_more": "aload 1 2 acquire 1 0",
    "aload_less": "aload 1 2 acquire",
    "astore_more": "astore 1 2 release 1 0",
    "astore_less": "astore 1 2 release",
    "rmw_more": "rmw 1 2 acq_rel 0 1 2",
    "rmw_less": "rmw 1 2 acq_rel 0",
    "load_more": "load 1 1 0 0",
    "load_less": "load 1 1",
    "store_more": "store 1 1 0 0",
    "store_less": "store 1 1",
    "fence_more": "fence 1 seq_cst 0",
    "fence_less": "fence 1",
    "kind_alone": "store",
    "other_kind": "swap 1 1 0",
    "kind_by_number": "7 1 1 0",
    "upper_case": "Store 1 1 0",
    "letter_more": "stores 1 1 0",
    "letter_less": "stor 1 1 0",
    "no_space_after_kind": "store1 1 0",
    "empty": "",
    "other_order": "aload 1 2 acq 1",
    "order_letter_more": "aload 1 2 acquires 1",
    "order_none": "aload 1 2 none 1",
    "order_by_number": "aload 1 2 3 1",
    "order_upper_case": "aload 1 2 Acquire 1",
    "order_hyphen": "rmw 1 2 acq-rel 0 1",
    "order_one_word": "rmw 1 2 acqrel 0 1",
    "order_missing": "aload 1 2 1",
    "order_after_value": "aload 1 2 1 acquire",
    "order_next_to_value": "aload 1 2 acquire1",
    "order_of_lock": "lock 1 0 acquire",
    "order_of_unlock": "unlock 1 0 release",
    "order_of_load": "load 1 1 relaxed 0",
    "order_of_store": "store 1 1 relaxed 0",
    "fence_none": "fence 1 none",
    "fence_at_place": "fence 1 2 seq_cst",
    "fence_at_65535": "fence 1 65535 seq_cst",
    "thread_t": "store 2 1 0",
    "thread_past_16_bits": "store 65537 1 0",
    "fence_of_thread_t": "fence 2 seq_cst",
    "place_p": "store 1 3 0",
    "lock_at_place_p": "lock 1 3",
    "rmw_at_place_p": "rmw 1 3 acq_rel 0 1",
    "place_past_16_bits": "store 1 65537 0",
    "read_past_32_bits": "load 1 1 4294967296",
    "written_past_32_bits": "rmw 1 2 relaxed 0 4294967296",
    "written_past_64_bits": "store 1 1 18446744073709551616",
    "zero_before_thread": "store 01 1 0",
    "zero_before_place": "store 1 01 0",
    "zero_before_value": "store 1 1 00",
    "zero_before_read": "aload 1 2 acquire 01",
    "value_empty": "store 1 1 ",
    "plus": "store 1 1 +0",
    "minus": "store 1 1 -1",
    "space_before": " store 1 1 0",
    "space_after": "store 1 1 0 ",
    "two_spaces": "store 1  1 0",
    "tab": "store 1\t1 0",
    "cr": "store 1 1 0\r",
    "nul": "store 1 1 0\0",
    "byte_255": "store 1 1 \xff",
}
# after the twelve fences
EDGE_LINES = {
    "other_relation": "|hb 0 1\n",
    "upper_case": "|SB 0 1\n",
    "letter_less": "|s 0 1\n",
    "letter_more": "|sbb 0 1\n",
    "no_space_after_relation": "|sb0 1\n",
    "by_number": "|0 0 1\n",
    "a_is_n": "|sb 12 0\n",
    "b_is_n": "|sb 0 12\n",
    "last_b_is_n": "sb 0 1\nmo 11 11\n|mo 11 12\n",
    "a_past_8_bits": "|sb 256 1\n",
    "b_past_64_bits": "|sb 0 18446744073709551617\n",
    "twice": "sb 0 1\n|sb 0 1\n",
    "twice_with_another_between": "sb 0 1\nsb 0 2\n|sb 0 1\n",
    "last_twice": "mo 11 11\n|mo 11 11\n",
    "b_falls": "sb 0 2\n|sb 0 1\n",
    "a_falls": "sb 1 2\n|sb 0 3\n",
    "relation_falls": "asw 0 6\n|sb 1 7\n",
    "asw_after_dd": "dd 0 1\n|asw 0 6\n",
    "dd_after_cd": "cd 0 1\n|dd 0 2\n",
    "cd_after_rf": "rf 0 1\n|cd 0 2\n",
    "rf_after_sc": "sc 0 1\n|rf 0 2\n",
    "sc_after_mo": "mo 0 1\n|sc 0 2\n",
    "b_as_words": "sb 0 10\n|sb 0 9\n",
    "a_as_words": "sb 10 0\n|sb 9 0\n",
    "asw_inside": "|asw 0 5\n",
    "asw_inside_backwards": "|asw 5 0\n",
    "asw_inside_later": "asw 0 6\nasw 5 11\n|asw 6 11\n",
    "asw_itself": "|asw 3 3\n",
    "asw_last_itself": "asw 11 5\n|asw 11 11\n",
    "zero_before_a": "|sb 00 1\n",
    "zero_before_b": "|sb 0 01\n",
    "b_missing": "|sb 0\n",
    "b_empty": "|sb 0 \n",
    "three_numbers": "|sb 0 1 2\n",
    "plus": "|sb 0 +1\n",
    "two_spaces": "|sb  0 1\n",
    "space_before": "| sb 0 1\n",
    "space_after": "sb 0 1\n|sb 0 2 \n",
    "tab": "|sb 0\t1\n",
    "cr": "|sb 0 1\r\n",
    "empty_line": "sb 0 1\n|\nsb 0 2\n",
    "action_after_it": "sb 0 1\n|fence 0 relaxed\n",
}
# after the edges of D
ENDS = {
    "missing": "|",
    "upper_case": "|End\n",
    "letter_less": "|en\n",
    "letter_more": "|ends\n",
    "space_before": "| end\n",
    "space_after": "|end \n",
    "cr": "|end\r\n",
    "nul": "|end\0\n",
    "no_newline": "|end",
    "byte_after_it": "end\n|x",
    "nul_after_it": "end\n|\0",
    "space_after_it": "end\n| ",
    "newline_after_it": "end\n|\n",
    "end_after_it": "end\n|end\n",
    "edge_after_it": "end\n|mo 1 4\nend\n",
    "text_after_it": "end\n|" + D,
}
# the first bad line counts
TWO_LINES = {
    "first_and_place": "|drawing 1 6 3 2 \nPlain\n" + "atomic\n" + ACTIONS + EDGES + "end\n",
    "place_and_action": FIRST + "plain\n|Atomic\nstore 3 0 0\n" + "store 0 0 0\n" * 5 + "end\n",
    "two_actions": "drawing 1 3 1 1\nplain\nstore 0 0 0\n|store 0 1 0\nstore 1 0 0\nend\n",
    "action_and_edge": "drawing 1 1 1 1\nplain\n|store 0 0 00\nsb 0 1\nend\n",
    "two_edges": FENCES + "sb 0 2\n|sb 0 1\nasw 0 1\nend\n",
    "inside_and_out_of_order": FENCES + "asw 0 6\n|asw 1 2\nsb 0 1\nend\n",
    "edge_and_no_end": FENCES + "|sb 0 12\n",
    "edge_and_byte_after_end": FENCES + "|asw 0 0\nend\nx",
    "action_and_no_more": "drawing 1 3 1 1\nplain\n|store 0 0\n",
    "place_and_no_newline": "drawing 1 0 0 2\n|mutexes\natomic",
}
# no text at all
OTHER = {
    "nothing": "|",
    "newline": "|\n",
    "newline_before": "|\n" + K,
    "crs": "|" + K.replace("\n", "\r\n"),
    "nul": "|\0",
    "many_nuls": "|" + "\0" * 100,
    "byte_255": "|\xff\xff\xff\n",
    "mark_before": "|\xef\xbb\xbf" + K,
    "file": "|" + letters()["D"].file().decode("latin-1"),
}


def cuts():
    """K cut after each of its lines but the last, in the middle of each, and before its newline."""
    lines = K.splitlines(keepends=True)
    for i, line in enumerate(lines):
        before = "".join(lines[:i])
        yield "middle_of_line_%d" % i, before + "|" + line[:len(line) // 2]
        yield "newline_of_line_%d" % i, before + "|" + line[:-1]
        if i:
            yield "before_line_%d" % i, before + "|"


def bad():
    """Name and text, with its bar."""
    tables = {
        "first": {name: "|" + line + "\n" + PLACES + ACTIONS + EDGES + "end\n" for name, line in FIRST_LINES.items()},
        "sizes": SIZES,
        "place": {name: FIRST + "|" + line + "\natomic\n" + ACTIONS + EDGES + "end\n" for name, line in PLACE_LINES.items()},
        "action": {name: "drawing 2 1 2 3\nmutex\nplain\natomic\n|" + line + "\nend\n" for name, line in ACTION_LINES.items()},
        "edge": {name: FENCES + edges + "end\n" for name, edges in EDGE_LINES.items()},
        "end": {name: FIRST + PLACES + ACTIONS + EDGES + end for name, end in ENDS.items()},
        "two": TWO_LINES,
        "other": OTHER,
        "cut": dict(cuts()),
    }
    for what, texts in tables.items():
        for name, text in texts.items():
            yield "bad_%s_%s" % (what, name), text
    # the last of its section
    yield "bad_place_last", "drawing 1 0 0 64\n" + "mutex\n" * 63 + "|mutes\nend\n"
    yield "bad_action_last", FIRST + PLACES + ACTIONS[:-len("load 2 0 0\n")] + "|load 2 2 0\n" + EDGES + "end\n"
    yield "bad_edge_last", FIRST + PLACES + ACTIONS + EDGES + "|mo 1 6\nend\n"
    # of one thread, but neither of one kind nor at one place
    yield "bad_edge_asw_inside_between_places", "drawing 1 2 1 2\nplain\natomic\nstore 0 0 0\naload 0 1 acquire 0\n|asw 0 1\nend\n"


# ---- good ones

ORDER_WORDS = ("relaxed", "consume", "acquire", "release", "acq_rel", "seq_cst")


def every_action():
    """Every kind, and every order of those that have one."""
    lines = ["lock 0 0", "load 0 1 5", "store 0 1 6", "unlock 0 0"]
    for order in ORDER_WORDS:
        lines += ["aload 1 2 %s 7" % order, "astore 1 2 %s 8" % order, "rmw 1 2 %s 9 10" % order, "fence 1 %s" % order]
    return "drawing 1 28 2 3\nmutex\nplain\natomic\n" + "".join(line + "\n" for line in lines) + "end\n"


def every_place():
    """Every kind at a place of each kind, its own or not."""
    lines = ["%s 0 %d%s" % (kind, place, rest) for kind, rest in (("lock", ""), ("unlock", ""), ("aload", " consume 1"), ("astore", " release 1"), ("rmw", " seq_cst 1 2"), ("load", " 1"), ("store", " 1"))
             for place in range(3)]
    return "drawing 2 21 1 3\nmutex\nplain\natomic\n" + "".join(line + "\n" for line in lines) + "end\n"


def many():
    """As many actions as there may be, in turn of two threads, and one in 97 of all edges."""
    acts = "".join("astore %d 0 relaxed %d\n" % (a % 2, a) for a in range(128))
    edges = "".join("%s %d %d\n" % (name, a, b) for k, name in enumerate(NAMES) for a in range(128) for b in range(128)
                    if (31 * k + 7 * a + b) % 97 == 0 and (name != "asw" or a % 2 != b % 2))
    return "drawing 2 128 2 1\natomic\n" + acts + edges + "end\n"


def rings():
    """Bytes for an organ's relays, through a ring that one core fills and another empties: places 0 and 1 are its slots, for a key and for its velocity, place 2 its head, which counts the bytes put in.

    Thread 0 sets it up (0, 1, 2). Thread 1 gets the bytes: it puts in the key (3), and the head is 1 (4); then the velocity (5), and the head is 2 (6). Thread 2 works the relays: it finds 2 at the head (7), and takes both bytes (8, 9).
    As meant; with the release forgotten at 6, where the old velocity may be taken; and with that velocity taken though nothing is forgotten."""
    def ring(last, velocity, source):
        acts = [act(STORE, 0, 0), act(STORE, 0, 1), act(ASTORE, 0, 2, RELAXED),
                act(STORE, 1, 0, written=60), act(ASTORE, 1, 2, RELEASE, written=1), act(STORE, 1, 1, written=100), act(ASTORE, 1, 2, last, written=2),
                act(ALOAD, 2, 2, ACQUIRE, read=2), act(LOAD, 2, 0, read=60), act(LOAD, 2, 1, read=velocity)]
        return Candidate(3, [1, 1, 2], acts, 2, sb=in_turn([0, 1, 2]) + in_turn([3, 4, 5, 6]) + in_turn([7, 8, 9]), asw=[(2, 3), (2, 7)],
                         rf=[(6, 7), (3, 8), (source, 9)], mo=in_turn([2, 4, 6]))
    return {"ring": ring(RELEASE, 100, 5), "ring_relaxed": ring(RELAXED, 0, 1), "ring_stale": ring(RELEASE, 0, 1)}


def good():
    yield "D", D
    yield "K", K
    yield "nothing", "drawing 1 0 0 0\nend\n"
    yield "nothing_at_64_places", "drawing 2 0 16 64\n" + "mutex\nplain\natomic\natomic\n" * 16 + "end\n"
    yield "fence_at_no_place", "drawing 2 1 1 0\nfence 0 relaxed\nend\n"
    yield "last_thread_and_place", "drawing 1 1 16 64\n" + "plain\n" * 64 + "store 15 63 0\nend\n"
    yield "values", "drawing 2 3 1 2\nplain\natomic\nstore 0 0 4294967295\nload 0 0 4294967295\nrmw 0 1 acq_rel 4294967295 4294967295\nend\n"
    yield "every_action", every_action()
    yield "every_place", every_place()
    # the words 10 and 11 come before 9, and asw before sb
    yield "as_numbers", FENCES + "sb 0 9\nsb 0 10\nsb 0 11\nsb 9 0\nsb 10 0\nsb 11 0\nasw 9 0\nasw 10 0\ndd 0 9\ncd 0 10\nend\n"
    yield "themselves", FENCES + "".join("%s 0 0\n%s 11 11\n" % (name, name) for name in NAMES if name != "asw") + "end\n"
    yield "asw_across", FENCES + "asw 0 6\nasw 0 11\nasw 5 6\nasw 6 0\nasw 11 5\nend\n"
    yield "many", many()
    for name, candidate in rings().items():
        yield name, text_of(candidate).decode()


def texts():
    """Name, bytes, and where the first bad or missing line starts; None for a good text."""
    for name, text in good():
        yield name, text.encode(), None
    for name, text in bad():
        before, _, rest = text.partition("|")
        yield name, (before + rest).encode("latin-1"), len(before)
