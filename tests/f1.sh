# For the scripts beside it: what every example prints and a test that it is so, and the README's code.
f1='order: 01 00 10 11
FULL 9 24
0 1 5
1 0 3
1 1 1'

stop() {
    echo "tests: $1"
    exit 1
}

# same WHAT TEXT: says that WHAT prints F1, or stops
same() {
    [ "$2" = "$f1" ] || stop "$1 printed
$2"
    echo "$1 prints F1"
}

# readme LANGUAGE: the README's code in this language
readme() {
    sed -n '/^```'"$1"'$/,/^```$/{/^```/!p}' README.md
}
