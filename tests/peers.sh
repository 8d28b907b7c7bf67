#!/bin/sh
# Lets two other programs hear our burst writer. Installs them from Debian if they are missing.
# Usage: peers.sh PATH-OF-OWAC [OPTIONS OF peers.py]
set -e
here=$(cd "$(dirname "$0")" && pwd)
if ! command -v atest >/dev/null || ! command -v multimon-ng >/dev/null; then
    apt-get update -q
    DEBIAN_FRONTEND=noninteractive apt-get install -q -y --no-install-recommends direwolf multimon-ng
fi
exec python3 "$here/peers.py" "$@"
