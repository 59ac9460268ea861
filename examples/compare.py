"""Compares two routines: c; c against c; says how many names each uses; then follows the play shown. First it looks
through three moves only."""
import negyvosal

# Z = 1, rule 0; name 8 is a command.
HEADING = bytes([1, 0, 1, 8, 0, 0, 255, 255, 255, 255])
OLD, NEW = HEADING + bytes([24, 20, 8, 20, 8]), HEADING + bytes([20, 8])

looked = negyvosal.look(OLD, NEW, 3)
assert isinstance(looked, negyvosal.SoFar), "no play of three moves tells the sheets apart"
print(f"same so far {looked.looked}")
apart = negyvosal.compare(OLD, NEW)
assert isinstance(apart, negyvosal.Apart), "the sheets are apart"
print(f"apart in {apart.sheet.name.lower()} {apart.moves}")
print(f"names used: old {apart.old.used} new {apart.new.used}")
followed = negyvosal.follow(OLD, apart.play)
assert isinstance(followed, negyvosal.Followed), "the play is followed"
print(f"old follows {followed.count} complete {'yes' if followed.complete else 'no'}")
