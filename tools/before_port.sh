#!/usr/bin/env bash
# Run once at the top, before the kit's port.py: that script takes a tree for one in today's spelling where a
# proof file has a word of its list, and the names that Demand1 gives to five modules are such words.
set -eu
sed -i -E 's/\b(rotate_left|rotate_right|from_le_bytes|from_be_bytes|block_at)(\.Post|$)/the_\1\2/' crates/demands/proofs/Demand1.antt
