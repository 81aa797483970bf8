"""Tests that are not run always."""

# files whose tests are quick on a program without proofs, which is some hundred times slower and needs more memory
QUICK_UNPROVED = (
    "beside_node", "caller_streams", "calls", "causes", "chain_streams", "command_line", "decoding", "embedding", "examples", "explained", "explained_packages", "heights", "installing",
    "json_texts", "living_streams", "mistakes", "objects", "openings", "package_streams", "permissions", "progress", "psbts", "random_streams", "recorded_cases", "replies", "rules", "samples", "terminals", "trying",
)


def long(test):
    """A test that takes more than a minute: tests/run --long runs it too."""
    test.is_long = True
    return test


def heavy(test):
    """A test of these files that is not quick on a program without proofs."""
    test.is_heavy = True
    return test


def is_quick_unproved(case):
    """Whether a test is quick on a program without proofs."""
    return case.id().split(".")[0] in QUICK_UNPROVED and not getattr(getattr(case, "test", None), "is_heavy", False)
