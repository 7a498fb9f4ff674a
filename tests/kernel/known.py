"""What is known to be wrong today, and why. Each is played, and has to be wrong still, in that way; where it is right the test fails, and
its line goes: here, and in docs/PROMISES.md, docs/CLAUSES.md and docs/RECOVER.md."""

FIRST_MOMENT, TOO_SMALL = "first moment", "too small"

# Nothing is lost, but there is no array.
NOT_STARTED = {
    FIRST_MOMENT: "the new member's superblock alone tells of its role yet, and mdadm starts none of them together",
    TOO_SMALL: "a kernel takes no member with less than ten sectors for data",
}
