#!/usr/bin/env bash
# No statement of a lemma is proved twice.
cd "$(dirname "$0")/.." || exit 1
python3 checks/repeated.py
