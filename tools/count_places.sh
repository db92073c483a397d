#!/bin/bash
# Counts, at the top of a checkout, the candidates that docs/DESIGN-PASS.md lists.
S='crates/*/src'
n() { printf '%-4s %s\n' "$1" "$(eval "$2" | wc -l)"; }
n 1a "grep -rnE 'Err\((e|fault|refusal|trouble|_)\) =>' $S"
n 1b "grep -rnE 'if let Err\(|let Err\(.*else' $S"
n 1c "grep -rnE 'io::Result<(bool|Result<|Option<)' $S"
n 1d "grep -rnE '\b(Numbers|Verdict)\b' $S | grep -v '^[^:]*:[0-9]*:use '"
n 2a "grep -rnoE '^ *(pub )?fn [a-z_0-9]+' $S | sed 's/.*fn //' | sort | uniq -d"
n 3a "grep -rnE 'for .* in [^{]*\.\.' $S"
n 3b "grep -rnE '^ *(j|at|found|count) \+= ' $S"
n 3c "grep -rnE 'iter\(\)\.skip|iter_mut\(\)\.(skip|take)' $S"
n 4a "grep -rnE '^ *(pub )?fn (number|place|of|suite_by|numbers_of|numbers_told|params_of|buffer_name|name_of|digit|unhex)\(' $S"
n 5a "grep -rhE '^ +requires' $S | sed -E 's/^ *requires ([a-z_0-9]+ )?\{//; s/\}\$//; s/\.(now|old)//g' | sort | uniq -c | awk '\$1>=3'"
n 5b "grep -rnE '^ +(rt: &HostRuntime|heap: Global),' $S"
n 6a "grep -rnE 'let mut [a-z_]+ = \[0u(8|16); [A-Z0-9]+\]' $S"
n 6b "grep -rnE 'split_at_mut\(64\)' $S"
n 7a "grep -rnE '(scan: bool|word: &str|hash: Hash)' $S"
n 8a "find crates/*/proofs -name Answers.antt | xargs grep -hE '^pub [^:]+ : goal'"
n 8b "find crates/*/proofs -name '*.antt' | xargs cat"
