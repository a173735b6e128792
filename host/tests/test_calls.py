"""The library's calls at the edges of what they take: calls.c, core_calls.c, record_calls.c, watch_calls.c, shelf_calls.c,
join_calls.c, retire_calls.c and take_back_calls.c here; and the campaigns of process_calls.c."""

from programs import expect_all_ok


def test_digest_and_reading():
    expect_all_ok("calls")


def test_table_and_admission():
    expect_all_ok("core_calls")


def test_interpretation_and_replay():
    expect_all_ok("record_calls")


def test_one_slots_process():
    expect_all_ok("process_calls")


def test_watch_and_building():
    expect_all_ok("watch_calls")


def test_shelf_and_arrivals():
    expect_all_ok("shelf_calls")


def test_joining():
    expect_all_ok("join_calls")


def test_retiring():
    expect_all_ok("retire_calls")


def test_taking_back():
    expect_all_ok("take_back_calls")
