#!/bin/sh
# Counts the places of each point of docs/DESIGN-PASS.md in the code of the crates. Run at the top.
#   count.sh        the numbers
#   count.sh N      the places of point N
src() { grep -rnE --include=*.rt "$1" crates/*/src; }
# 1: a variant that stands for none, for passed or for a refusal, and numbers that stand for none.
one() {
    src '^    (Passed|OutOfRange|Other|Nowhere|Unfit|End|Whole|TooMany|NoNode|NoPath|Unknown|Unmet|Refused\([A-Z][A-Za-z]*\)|Fault\(u16\)|Beyond\(u16\)|Open\(u16\)),'
    src 'const (REFUSED|FIRST_REFUSAL)\b|== 256|kind == 0|beyond (==|!=) 0|fn lowest\(self\) -> u8'
}
# 2: groups of functions of the same shape.
two() { python3 tools/design/twins.py; }
# 3: loops that aren't `for`.
three() { src '^ *(while |loop \{)'; }
# 4: comparing, converting and printing by functions of one's own.
four() {
    src '^ *(pub(\(crate\))? )?fn (is|is_positive|is_negative|opposed|is_same|is_differ|same_[a-z]+|is_digit|is_neither|of|of_number|of_numbers|numbers?|sign_number|sign_at|comparison_number|comparison_at|channel_at|wide|low|bytes|edge_rank|to_[a-z]+)\('
}
# 5: the same clause in the contracts of three functions or more.
five() {
    src '^ *requires ' | sed 's/.*requires *[a-z_0-9]* *{/{/' | sort | uniq -c | awk '$1 >= 3' | sort -rn
}
# 6: arrays of bytes and numbers on the stack.
six() { src '= \[0u?[0-9]*; ?[A-Z_0-9]|\[(0u8|0u16|0); [A-Z_]+\]'; }
# 7: enums and numbers that choose what runs.
seven() { src 'enum (FieldTest|Use|Kind|Order|Direction|Form|NodeKind|PathKind)\b|match (rule|want|letter) \{'; }
# 8: lines of proofs of functions.
eight() { find crates -path '*/proofs/*' -not -path '*/out/*' \( -name Answers.antt -o -name Invariants.antt -o -name Proof.antt \) | xargs cat; }
case "$1" in
1) one ;; 2) two ;; 3) three ;; 4) four ;; 5) five ;; 6) six ;; 7) seven ;; 8) eight ;;
*)
    echo "1 $(one | wc -l)"; echo "2 $(two | wc -l)"; echo "3 $(three | wc -l)"; echo "4 $(four | wc -l)"
    echo "5 $(five | wc -l)"; echo "6 $(six | wc -l)"; echo "7 $(seven | wc -l)"; echo "8 $(eight | wc -l)"
    ;;
esac
