#!/bin/sh
# Prints, beside the same work in plain Rust: bytes a second and memory of `format` on plans, domains and problems of 1, 4 and 16 MiB; then processor
# seconds and peak memory of `format` on plans of short and of long steps, of `domain` and `problem` on files that link, small and near the limit of
# 16 MiB, beside those of `format`, which reads and prints the last of them, and of `plan` on valid plans; and those of `plan` and `serial` alone on
# actions that quantify over very many variables. `files.py` and `plan_files.py` say what each kind of file is.
# Each figure is that of the best of five runs.
# Wants GNU time, Python 3 and rustc.
here=$(cd "$(dirname "$0")" && pwd) || exit 1
"$here/../pddlcheck" --help >/dev/null || exit 1
program=$here/../crates/pddlcheck/out/pddlcheck
folder=$(mktemp -d) || exit 1
trap 'rm -rf "$folder"' EXIT
for name in plain plain_links plain_plans; do
    rustc --edition 2021 -O -o "$folder/$name" "$here/$name.rs" || exit 1
done

# runs OUT COMMAND..: processor seconds and KiB of the best run; what it printed goes to the file OUT
runs() {
    out=$1
    shift
    rm -f "$folder/times"
    for _ in 1 2 3 4 5; do
        /usr/bin/time -a -o "$folder/times" -f '%U %S %M' "$@" >"$folder/$out" || return 1
    done
    awk '{ print $1 + $2, $3 }' "$folder/times" | sort -n | head -n 1
}

# speed OUT COMMAND..: MB/s and bytes of memory a byte of the file
speed() {
    best=$(runs "$@") || return 1
    echo "$best" | awk -v size="$size" '{
        speed = $1 > 0 ? sprintf("%.0f", size / $1 / 1e6) : "-"
        printf "%8s %8.1f", speed, $2 * 1024 / size
    }'
}

# seconds OUT COMMAND..: seconds and MiB
seconds() {
    best=$(runs "$@") || return 1
    echo "$best" | awk '{ printf "%8.2f %8.0f", $1, $2 / 1024 }'
}

# same: says so where the program and plain Rust printed different texts
same() {
    cmp -s "$folder/ours" "$folder/theirs" || echo "the two print different texts"
}

# make KIND N FILE
make() {
    python3 "$here/files.py" "$1" "$2" >"$folder/$3" || exit 1
}

printf '%-9s %4s   %-17s   %-17s\n' '' '' 'format' 'plain Rust'
printf '%-9s %4s  %8s %8s   %8s %8s\n' file MiB MB/s memory MB/s memory
for file in plain timed comments domain problem; do
    case $file in
        domain | problem) kind=$file ;;
        *) kind=plan ;;
    esac
    for mib in 1 4 16; do
        make "$file" "$mib" file
        size=$(wc -c <"$folder/file")
        ours=$(speed ours "$program" format "$kind" "$folder/file") || exit 1
        theirs=$(speed theirs "$folder/plain" "$kind" "$folder/file") || exit 1
        printf '%-9s %4d  %s   %s\n' "$file" "$mib" "$ours" "$theirs"
        same
    done
done

printf '\n%-24s %8s   %-17s   %-17s\n' '' '' 'format' 'plain Rust'
printf '%-24s %8s  %8s %8s   %8s %8s\n' plan bytes seconds MiB seconds MiB
for case in 'short 1000000' 'long 100000'; do
    # shellcheck disable=SC2086
    make $case file
    ours=$(seconds ours "$program" format plan "$folder/file") || exit 1
    theirs=$(seconds theirs "$folder/plain" plan "$folder/file") || exit 1
    printf '%-24s %8d  %s   %s\n' "$case" "$(wc -c <"$folder/file")" "$ours" "$theirs"
    same
done

# linked TITLE: for each line with the kind and number of a domain, of a problem where there is one, and `unprinted` where the canonical text of the
# last names a type once for each of very many items, so that it is gigabytes long
linked() {
    printf '\n%-24s %8s   %-17s   %-17s   %-17s\n' "$1" '' 'format' 'linked' 'plain Rust'
    printf '%-24s %8s  %8s %8s   %8s %8s   %8s %8s\n' file bytes seconds MiB seconds MiB seconds MiB
    while read -r kind count other more unprinted; do
        make "$kind" "$count" domain
        case $other in
            '' | unprinted)
                unprinted=$other
                name="$kind $count"
                set -- domain "$folder/domain"
                ;;
            *)
                make "$other" "$more" problem
                name="$other $more"
                set -- problem "$folder/domain" "$folder/problem"
                ;;
        esac
        printed=$(printf '%17s' -)
        if [ -z "$unprinted" ]; then
            printed=$(seconds printed "$program" format "$1" "$folder/$1") || exit 1
        fi
        # of files that do not link the status is 2
        # shellcheck disable=SC2016
        ours=$(seconds ours sh -c '"$@" || [ $? -eq 2 ]' linked "$program" "$@") || exit 1
        theirs=$(seconds theirs "$folder/plain_links" "$@") || exit 1
        shift
        printf '%-24s %8d  %s   %s   %s\n' "$name" "$(cat "$@" | wc -c)" "$printed" "$ours" "$theirs"
        same
    done
}

linked 'linking' <<'END'
actions 500
actions 2000
actions 1 items 125000
actions 1 items 500000
parameters 60000
parameters 240000
parameters 1 variables 60000
parameters 1 variables 240000
parameters 1 hidden 225000
parameters 1 hidden 900000
parameters 1 outermost 225000
parameters 1 outermost 900000
eithers 5000 facts 5000
eithers 20000 facts 20000
eithers 500 spoken 500
eithers 2000 spoken 2000
slot 5000 slot-facts 5000
slot 20000 slot-facts 20000
subsets 800 subsets-goal 800
subsets 2400 subsets-goal 2400
apart 600 apart-goal 600
apart 1800 apart-goal 1800
above 10000 above-goal 10000
above 40000 above-goal 40000
chain 2500 chain-facts 2500
chain 10000 chain-facts 10000
below 5000 unprinted
below 20000 unprinted
slots 5000 unprinted
slots 20000 unprinted
named 25000
named 100000
named 25000 named-facts 25000
named 100000 named-facts 100000
named-constants 25000 named-objects 25000 unprinted
named-constants 100000 named-objects 100000 unprinted
retold 10000 retold-objects 10000 unprinted
retold 40000 retold-objects 40000 unprinted
costs 1 costs-values 30000
costs 1 costs-values 120000
late 1 late-facts 5000
late 1 late-facts 20000
late 1 repeated 100000
late 1 repeated 400000
ring 25000
ring 100000
rings 25000
rings 100000
END

linked 'near the limit' <<'END'
actions 48000
actions 1 items 500000
parameters 640000
parameters 1 variables 390000
parameters 1 hidden 1600000
parameters 1 outermost 1600000
eithers 500000
eithers 50000 spoken 50000
slot 400000 slot-facts 400000
crossed 850 crossed-goal 850
subsets 4600 subsets-goal 4600
apart 2400 apart-goal 2400
above 100000 above-goal 100000
chain 73000 chain-facts 73000
below 1250000 unprinted
slots 400000 unprinted
named 1190000 named-facts 1190000
named-constants 1000000 named-objects 1000000 unprinted
retold 400000 retold-objects 400000 unprinted
costs 1 costs-values 480000
late 1 late-facts 75000
late 1 repeated 1500000
ring 740000
rings 760000
END

# plans NAME: the files of a valid plan
plans() {
    python3 "$here/plan_files.py" "$1" "$folder" || exit 1
}

printf '\n%-24s %8s   %-17s   %-17s\n' '' '' 'plan' 'plain Rust'
printf '%-24s %8s  %8s %8s   %8s %8s\n' files bytes seconds MiB seconds MiB
for case in walk together few moments adl; do
    plans "$case"
    set -- "$folder/domain.pddl" "$folder/problem.pddl" "$folder/plan.plan"
    ours=$(seconds ours "$program" plan "$@") || exit 1
    theirs=$(seconds theirs "$folder/plain_plans" "$@") || exit 1
    printf '%-24s %8d  %s   %s\n' "$case" "$(cat "$@" | wc -c)" "$ours" "$theirs"
    same
done

printf '\n%-24s %8s   %-17s   %-17s\n' '' '' 'plan' 'serial'
printf '%-24s %8s  %8s %8s   %8s %8s\n' files bytes seconds MiB seconds MiB
for case in walk together variables group nothing single names; do
    plans "$case"
    set -- "$folder/domain.pddl" "$folder/problem.pddl" "$folder/plan.plan"
    plan=$(seconds ours "$program" plan "$@") || exit 1
    serial=$(seconds ours "$program" serial "$@") || exit 1
    printf '%-24s %8d  %s   %s\n' "$case" "$(cat "$@" | wc -c)" "$plan" "$serial"
done
