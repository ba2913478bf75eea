#!/bin/bash
# Compares what ./generate writes with what is there. The last line is 'N passed, M failed'.
if "$(dirname "$0")/../generate" --check; then
    echo "ok: all that ./generate writes is current"
    echo "1 passed, 0 failed"
else
    echo "FAILED: all that ./generate writes is current"
    echo "0 passed, 1 failed"
    exit 1
fi
