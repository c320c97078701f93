"""What `import pfair` gives: its public names, and no others."""
import types

import pfair

TYPES = "Counts Dispatcher Entry Faults Miss Planned Schedule Script State StateMember Succession TakenCounts Violation"
CALLS = "arrive check depart first_late first_miss late promise read_task_file rows_of schedule succeed windows"
TABLES = "BY_NUMBER DECISION ENTRY LAG MEMBER OUTCOMES QUANTUM WINDOW errors study"


def test_public_names():
    errors = {name for name, kind in vars(pfair).items() if isinstance(kind, type) and issubclass(kind, Exception)}
    wanted = {*TYPES.split(), *CALLS.split(), *TABLES.split(), *errors}
    assert set(pfair.__all__) >= wanted and len(pfair.__all__) == len(set(pfair.__all__)) and len(errors) == 39
    assert all(hasattr(pfair, name) for name in pfair.__all__) and isinstance(pfair.study, types.ModuleType)
    names = {}
    exec("from pfair import *", names)
    assert wanted <= set(names)
    # each name without an underscore is public, but those of modules and the version, which is __version__
    plain = {name for name, value in vars(pfair).items() if name[0] != "_" and not isinstance(value, types.ModuleType)}
    assert plain == set(pfair.__all__) - {"errors", "study"}
    assert errors == {name for name in vars(pfair.errors) if name in errors} | {"CannotSucceed", "NoCycle", "NotHeld"}
