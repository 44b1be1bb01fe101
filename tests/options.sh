# Read by compare and waits: takes `--files N` and `--seed S` into $files, which has its usual number already, and $seed.
seed=0
while [ $# -gt 0 ]; do
    case "$1 ${2-}" in
        "--files "[0-9]*) files=$2 ;;
        "--seed "[0-9]*) seed=$2 ;;
        *) sed -n 's/^# usage/usage/p' "$0" >&2; exit 2 ;;
    esac
    shift 2
done
