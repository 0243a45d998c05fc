# The words of bench/run and bench/run-peers, which are checked before anything is built: that takes minutes.
# shellcheck shell=sh

# Each part of this list, which has commas between them, is one of the further words.
lists() {
    left=$1,
    shift
    while [ -n "$left" ]; do
        case " $* " in
        *" ${left%%,*} "*) left=${left#*,} ;;
        *) return 1 ;;
        esac
    done
}

is_number() {
    case $1 in '' | *[!0-9]*) return 1 ;; esac
}

is_word() {
    value=${1#*=}
    case $1 in
    --quick | --no-rt | --poll | --verify) ;;
    --work=*) lists "$value" latency grow append beside read search memory durable open ;;
    --blocks=*) lists "$value" 1 16 256 1024 4096 65536 ;;
    --threads=*) lists "$value" 1 2 4 ;;
    --modes=*) lists "$value" wait1 wait64 flow late ;;
    --reps=* | --patience=*) is_number "$value" ;;
    --peers=?* | --base=?* | --ext=?*:?*) ;;
    *) return 1 ;;
    esac
}

# Ends the script of this name with status 2 where the further words aren't a folder and words of its own.
check_words() {
    script=$1
    shift
    case ${1:--} in
    -*) wrong='OUT is missing' ;;
    *)
        shift
        wrong=
        for word; do
            is_word "$word" || wrong="no word of it: $word"
        done
        ;;
    esac
    [ -n "$wrong" ] || return 0
    printf '%s\n' "$script: $wrong" "usage: $script OUT [WORD ..]; bench/README.md has the words" >&2
    exit 2
}
