"""Which tests take long, and which must not run beside one another. pytest reads it in conftest.py."""

# Those that took more than five processor seconds, or are whole files that did: a file, a class of it, or one of its tests.
SLOW = (
    "test_archives.Refusals.test_of_broken_archives", "test_definitions.Markers.test_hold", "test_drawn_sessions",
    "test_environment.Pythons.test_is_run_by_each", "test_file_calls", "test_fleet_workers.Workers",
    "test_hostile_files.Archives.test_headers_that_are_not_read_take_no_memory",
    "test_hostile_files.Locks.test_with_environments_of_other_forms", "test_install.Installed.test_what_is_installed_runs_and_is_removed",
    "test_joint_drawn", "test_journals.Program.test_altered_journals", "test_journals.Program.test_altered_locks_with_their_digest",
    "test_keep_locked.Laws.test_of_drawn_states", "test_keep_locked.Sessions", "test_ladder.Shapes.test_each_family",
    "test_merge.Stops.test_a_git_that_is_killed", "test_package", "test_pictures.Pictures.test_of_sync", "test_program_growths",
    "test_rql_sync", "test_rql_week", "test_rules_tables.Rows.test_are_those_that_are_drawn", "test_types", "test_wheel_installed",
)
# Those that hold a call to a bound of some seconds by the clock.
MEASURED = "test_batch", "test_hostile_files", "test_hostile_index", "test_simple_requests"


def is_among(name: str, names: tuple[str, ...]) -> bool:
    """Whether a test, test_x.Class.test_y, is one of these, or stands in one of them."""
    return any(name == marked or name.startswith(f"{marked}.") for marked in names)
