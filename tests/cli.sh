#!/bin/bash
# Runs the transcripts of tests/cli/ and the commands of README.md and docs/USE.md
# (tests/transcript.py). The arguments name those to run. The last line is 'N passed, M failed'.
exec python3 "$(dirname "$0")/transcript.py" "$@"
