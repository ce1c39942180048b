#!/bin/sh
# Was for an archive of the loops with no proof and in seconds, to measure a shape before it is proved, with the loops of perf/unproved. It stood on
# a tool of an older kit. Today `rt lib` writes an archive of proved crates alone, and what `rt try` compiles unproved has checks in it, which count.
echo "unproved.sh: today's kit has no tool that compiles unproved code to an archive" >&2
exit 2
