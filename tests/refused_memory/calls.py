"""Each public call of the crates that may find no memory, and by which sweep it is tried: a test that fails so, or a step that is made
again, or a command that answers so; or the calls of other crates that alone make it.

What calls there are is read from the sources: a call without a line fails, and so does a line whose test or command did not find that
the call was refused its memory."""

import re

import support

# Those that are made of other crates by these calls alone, and have no state of their own; and the reading of a superblock, which the
# compiler makes without a call for memory where little is read beside it, as in `examine'.
WITHIN = {
    "md_array::read_members": "md_array::Mirror::open",
    "md_array::Mirror::enrol": "md_copy::rebuild",
    "md_array::Mirror::enrol_but_for": "md_copy::salvage",
    "md_array::Mirror::note_bad_sectors": "md_copy::salvage",
    "md_array::Mirror::regard_as_bad": "md_cli::run",
    "md_copy::sectors_to_list": "md_copy::salvage",
    "md_assembly::assemble": "md_array::Mirror::open",
    "md_check::compare_members": "md_commands::list_mismatches",
    "md_commands::resync_if_needed": "md_read_commands::read_array",
    "md_commands::resync_to_salvage": "md_commands::salvage_member",
    "md_create::new_spare": "md_array::Mirror::add",
    "md_images::lay_over": "md_cli::run",
    "md_read_commands::add_all": "md_cli::run",
    "md_read_commands::front_each": "md_cli::run",
    "md_read_commands::put_stand_in": "md_cli::run",
    "md_kept_members::united_marks": "md_array::Mirror::open",
    "md_kept_members::in_sync": "md_copy::rebuild",
    "md_kept_members::admitted_superblock": "md_array::Mirror::admit",
    "md_badblocks::BadSet::try_clone": "md_array::Mirror::note_bad",
    "md_kept_members::list_after": "md_copy::rebuild",
    "md_kept_members::remove_chunks": "md_copy::rebuild",
    "md_kept_members::add_sectors": "md_array::Mirror::note_bad_sectors",
    "md_kept_members::list_with": "md_array::Mirror::note_bad",
    "md_kept_members::list_with_sectors": "md_array::Mirror::note_bad_sectors",
    "md_kept_members::list_but_for": "md_array::Mirror::enrol_but_for",
    "md_kept_members::members_of": "md_array::Mirror::open",
    "md_files::read_map": "md_files::mask_images",
    "md_files::write_map": "md_files::write_map_of_read",
    "md_nbd::answer_requests": "md_nbd::serve_client",
    "md_files::MaskedImages::add": "md_files::mask_images",
    "md_files::MaskedImages::lacking": "md_files::mask_images",
    "md_members::read_super": "md_members::read_member",
    "md_kept_members::joined_superblock": "md_array::Mirror::re_add",
    "md_messages::ask_first": "md_cli::run",
    "md_messages::ask_of_absent": "md_cli::run",
    "md_messages::Notices::note_held_on_each": "md_cli::run",
    "md_pass::copy_pass": "md_copy::rebuild",
    "md_resync::make_agree": "md_resync::resync",
    "md_state::Array::note_bad": "md_array::Mirror::note_bad",
    "md_state::Array::note_bad_sectors": "md_array::Mirror::note_bad_sectors",
    "md_state::Array::regard_as_bad": "md_array::Mirror::regard_as_bad",
    "md_state::Array::member_but_for": "md_array::Mirror::enrol_but_for",
    "md_state::Array::check_add": "md_array::Mirror::add",
    "md_state::Array::missing": "md_array::Mirror::missing",
    "md_state::Array::check_enrol": "md_copy::rebuild",
    "md_state::Array::member_in_sync": "md_copy::rebuild",
    "md_state::Array::shared_with": "md_array::Mirror::re_add",
    "md_state::Array::check_admit": "md_array::Mirror::admit",
    "md_state::Array::check_re_add": "md_array::Mirror::re_add",
    "md_state::Array::begin": "md_array::Mirror::begin",
    "md_state::Array::new_spare": "md_array::Mirror::add",
    "md_state::Array::remember": "md_array::Mirror::open",
    "md_super::decode": "md_members::read_member",
    "md_super::Roles::try_clone": "md_array::Mirror::re_add",
    "md_super::Superblock::try_clone": "md_array::Mirror::re_add",
    "md_collect::Reports::none": "md_copy::rebuild",
}

# A test that makes the call as a step, which answers that it found no memory, leaves the mirror as it was, and is made again: the
# name by which the test tells of it.
AGAIN = {
    "md_array::Mirror::add": ("mirror_tests", "steps::members::coming_in::members_come_in", "add"),
    "md_array::Mirror::admit": ("mirror_tests", "steps::members::recovering::members_recover", "admit"),
    "md_array::Mirror::begin": ("mirror_tests", "steps::writes::writes_by_steps", "begin"),
    "md_array::Mirror::missing": ("mirror_tests", "steps::members::leaving::members_leave", "missing"),
    "md_array::Mirror::note_bad": ("mirror_tests", "steps::members::listing::lists_grow", "note_bad"),
    "md_array::Mirror::re_add": ("mirror_tests", "steps::members::leaving::members_leave", "re_add"),
    "md_resync::resync": ("mirror_tests", "steps::writes::writes_by_steps", "resync"),
    "md_write::write": ("mirror_tests", "steps::members::leaving::members_leave", "write"),
}

# A test that makes the call, and fails where that is refused its memory: the words with which it fails.
FAILS = {
    "md_array::Mirror::open": ("mirror_tests", "steps::openings::mirrors_are_opened", "NoMemory"),
    "md_badblocks::BadSet::from_log": ("mirror_tests", "parts::bad_block_logs::reads_and_writes_a_log", "NoMemory"),
    "md_badblocks::BadSet::add": ("mirror_tests", "parts::bad_block_logs::adds_and_removes", "AllocError"),
    "md_badblocks::BadSet::remove": ("mirror_tests", "parts::bad_block_logs::adds_and_removes", "AllocError"),
    "md_bitmap::Marks::from_bytes": ("mirror_tests", "parts::bitmaps::marks_bytes", "AllocError"),
    "md_bitmap::Marks::none": ("mirror_tests", "parts::bitmaps::marks_bytes", "AllocError"),
    "md_bitmap::Marks::all": ("mirror_tests", "parts::bitmaps::marks_bytes", "AllocError"),
    "md_cert::Table::push": ("mirror_tests", "parts::plans::verdicts::checker_refusals", "NoMemory"),
    "md_check::check_array": ("mirror_tests", "calls::array_checks::check_counts", "no memory: check_array"),
    "md_collect::read_chunk": ("mirror_tests", "parts::collector_reports::what_is_read_is_taken", "AllocError"),
    "md_collect::read_chunk_into": ("mirror_tests", "parts::collector_reports::a_failed_read_keeps_its_memory", "AllocError"),
    "md_collect::Collector::new": ("mirror_tests", "parts::collector_reports::each_planned_chunk_is_taken_once", "AllocError"),
    "md_copy::table": ("mirror_tests", "calls::rebuilds::rebuild_with_orphan", "no memory: table"),
    "md_copy::rebuild": ("mirror_tests", "calls::rebuilds::rebuild_with_orphan", "no memory: rebuild"),
    "md_copy::salvage": ("mirror_tests", "calls::salvage_rows::salvaged_members", "no memory: salvage"),
    "md_device::MemDevice::new": ("mirror_tests", "crashes::fuses::data_are_torn", "AllocError"),
    "md_images::MemImages::add": ("command_tests", "faults_in_memory::images_and_inputs_that_fail", "AllocError"),
    "md_images::MemImages::add_protected": ("command_tests", "faults_in_memory::images_and_inputs_that_fail", "AllocError"),
    "md_inflight::Inflight::push_back": ("mirror_tests", "parts::requests::removed_in_any_order", "NoMemory"),
    "md_nbd::answer_option": ("command_tests", "nbd_messages::answers_as_another_server_gives", "AllocError"),
    "md_nbd::put_request": ("command_tests", "nbd_messages::requests_of_clients", "AllocError"),
    "md_plan::plan": ("mirror_tests", "parts::plans::small_tables::plan_needs_a_move", "NoMemory"),
    "md_nbd::haggle": ("command_tests", "nbd_sessions::agrees_with_a_client", "NoMemory"),
    "md_nbd::serve_client": ("command_tests", "nbd_sessions::serves_a_client", "NoMemory"),
    "md_device::Fuse::new": ("mirror_tests", "crashes::fuses::metadata_stay", "AllocError"),
}

# A command of the program that answers `NoMemory'.
ANSWERS = {
    "md_commands::add_device": "add",
    "md_commands::add_device_json": "add --json",
    "md_commands::check_members": "check",
    "md_commands::check_members_json": "check --json",
    "md_commands::fail_member": "fail",
    "md_commands::list_mismatches": "check --list",
    "md_commands::re_add_device": "re-add",
    "md_commands::re_add_device_json": "re-add --json",
    "md_commands::rebuild_member": "rebuild",
    "md_commands::rebuild_member_json": "rebuild --json",
    "md_commands::remove_member": "remove",
    "md_commands::resync_array": "resync",
    "md_commands::salvage_member": "rebuild --salvage",
    "md_commands::salvage_member_json": "rebuild --salvage --json",
    "md_commands::show_detail": "detail",
    "md_commands::show_detail_json": "detail --json",
    "md_commands::show_plan": "plan",
    "md_commands::show_plan_json": "plan --json",
    "md_commands::show_summary": "assemble",
    "md_commands::show_summary_json": "assemble --json",
    "md_commands::stop_array": "stop",
    "md_commands::stop_array_json": "stop --json",
    "md_commands::write_array": "write",
    "md_create::create": "create",
    "md_metadata::grow": "grow",
    "md_examine_commands::examine_images": "examine-bitmap",
    "md_examine_commands::look_at_each": "scan",
    "md_notices::held_on_each": "create",
    "md_images::take_images": "assemble",
    "md_images::image_list": "assemble",
    # It is made after all else is said.
    "md_files::write_map_of_read": "read --map-out",
    "md_members::read_member": "examine-bitmap",
    "md_metadata::come_back": "re-add --full",
    "md_read_commands::read_array": "read",
    "md_read_commands::read_array_filled": "read --fill",
    "md_read_commands::read_array_readonly": "read --readonly",
    "md_read_commands::serve_array": "serve --readonly",
    "md_serve_commands::serve_writable": "serve",
}

# A command that answers `NoMemory' and is refused with all memory, later than another one that makes the calls before this one alone: so
# more of its runs answer so. The names of the images come before the list of maps, and the texts of the maps before the masks.
LATER = {
    "md_files::map_list": ("detail: BadMap 1 NotListed", "detail: BadMap 0 NotListed"),
    "md_files::mask_images": ("read: OutputFileExists", "detail: BadMap 0 Line 4 Cut"),
}

# These take no memory. One says so if a count is spent. One gives a list of faults, and one of them may be that a decoding found no
# memory. One has a case with the name of a type that may hold such a fault (`Refused'). For two the contract excludes that fault.
TAKES_NONE = {
    "md_streams::Questions::of",
    "md_commands::show_verbose_detail",
    "md_device::Fuse::share",
    "md_examine_commands::show_scan",
    "md_copy::check_rebuild",
    # Their fault, `StoreFault' of md_faults, has the name of that of a store which is served (md_nbd), and that one may have no memory.
    "md_array::Mirror::record",
    "md_array::Mirror::store_log",
    "md_array::Mirror::store_marks",
    "md_state::Array::check_active",
    "md_state::Array::check_in_sync",
    "md_state::Array::store_failed",
}

# The program too, and the files that it makes, which tests/resumed tries.
NOT_SHIPPED = re.compile(r"(.*_tests|example_members|md_outputs|mdcli)$")
TYPE = re.compile(r"^pub (?:enum|struct) (\w+)[^;{]*\{(.*?)^\}", re.M | re.S)
# A block of functions of a type, or a public function up to its clauses or its body.
IMPL = re.compile(r"^impl\b")
OWNER = re.compile(r"^impl(?:<[^>]*>)? (?:.* for )?(\w+)")
FUNCTION = re.compile(r"^( *)pub fn (\w+)")
ENDS = re.compile(r"^ *(?:requires|ensures|where)\b|\{$")


def sources():
    for folder in sorted((support.TOP / "crates").iterdir()):
        if not NOT_SHIPPED.match(folder.name):
            for file in sorted(folder.glob("src/**/*.rt")):
                yield folder.name, file.read_text(encoding="utf-8")


def says_so(texts):
    """What finds a type that says that memory was refused: the allocator's own, and those that have it or hold such a type."""
    found = {"AllocError", "NoMemory"}
    bodies = {match[1]: re.sub(r"//.*", "", match[2]) for _, text in texts for match in TYPE.finditer(text)}
    while True:
        word = re.compile(r"\b(%s)\b" % "|".join(sorted(found)))
        more = {name for name, body in bodies.items() if word.search(body)} - found
        if not more:
            return word
        found |= more


def functions_in(text):
    """Each public function of a file, by its type and name, with its head."""
    owner, lines = None, iter(text.splitlines())
    for line in lines:
        if IMPL.match(line):
            named = OWNER.match(line)
            owner = named[1] if named else None
        found = FUNCTION.match(line)
        if found:
            head = line
            while not ENDS.search(line):
                line = next(lines)
                head += " " + line
            yield "::".join(([owner] if found[1] and owner else []) + [found[2]]), head


def public_calls():
    """Each public function whose result may say so, under its crate, type and name."""
    texts = list(sources())
    word = says_so(texts)
    return {
        "%s::%s" % (crate, name)
        for crate, text in texts
        for name, head in functions_in(text)
        if "->" in head and word.search(head.rpartition("->")[2])
    }


def reasons_against(call, outcomes, commands):
    if call in TAKES_NONE:
        return []
    if call in WITHIN:
        return [] if WITHIN[call] in LINES else ["it is made within %s, which has no line" % WITHIN[call]]
    if call in ANSWERS:
        return [] if commands[ANSWERS[call]] else ["no run of `%s' answered NoMemory" % ANSWERS[call]]
    if call in LATER:
        later, earlier = LATER[call]
        counts = commands[later], commands[earlier]
        return [] if counts[0] > counts[1] > 0 else ["of `%s' and `%s' %d and %d runs answered NoMemory" % (later, earlier, *counts)]
    suite, test, words = AGAIN.get(call) or FAILS[call]
    if call in AGAIN:
        words = "no memory: " + words
    outcome = outcomes.get((suite, test))
    if outcome is None:
        return ["%s %s is not swept" % (suite, test)]
    return [] if words in outcome.said else ["no run of %s %s said `%s'" % (suite, test, words)]


LINES = {"md_cli::run"}.union(WITHIN, AGAIN, FAILS, ANSWERS, LATER, TAKES_NONE)


def lines_unlike_calls():
    """Each call without a line, and each line without a call. tests/documents looks too, since the sweeps before this take an hour."""
    calls = public_calls()
    for call in sorted(calls - LINES):
        yield call, "it may find no memory, and has no line in tests/refused_memory/calls.py"
    for call in sorted(LINES - calls - {"md_cli::run"}):
        yield call, "there is no such call, or it can't find that there is no memory"


def judge_all(tally, outcomes, commands):
    for call, reason in lines_unlike_calls():
        tally.failed(call, reason)
    for call in sorted(public_calls() & LINES):
        tally.judge(call, reasons_against(call, outcomes, commands))
