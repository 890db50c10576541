# Sourced by run: refuses, before anything is built, a FILE that cannot be read and the options that the programs of site/
# and converge/ would not take. They take and refuse the same: scripts/check tries it.

check_file() { # [FILE | -]
    case $#:${1-} in
    0: | 1:-) ;;
    1:) refuse "the name of FILE is empty" ;;
    1:-*) refuse "there is no option '$1'" ;;
    1:*)
        [ -e "$1" ] || fail "there is no file $1"
        [ -r "$1" ] || fail "the file $1 cannot be read"
        [ ! -d "$1" ] || fail "the file $1 could not be read: it is a folder"
        ;;
    *) refuse "one FILE at most, not $# arguments" ;;
    esac
}

range_of() { # PROGRAM OPTION
    case "$1 $2" in
    'site --hours') echo 2 12 ;;
    'converge --units') echo 2 49 ;;
    'converge --links') echo 1 1176 ;;
    'converge --sites') echo 1 1000000 ;;
    'site --seed' | 'converge --seed') echo 0 4294967295 ;;
    'converge --lose') echo 1 4294967295 ;;
    *) refuse "there is no option '$2'" ;;
    esac
}

# Sets `number`, without the zeros in front that would make it one to the base of 8.
read_number() { # OPTION LEAST MOST WORDS
    case $4 in
    '' | *[!0-9]* | ???????????*) ;;
    *)
        number=$(expr "$4" + 0) || : # its status says whether it is 0
        [ "$number" -lt "$2" ] || [ "$number" -gt "$3" ] || return 0
        ;;
    esac
    refuse "$1 takes a number from $2 to $3, not '$4'"
}

# A number of links has to do for the number of units, so that has to be one for all sites.
check_links() { # LINKS UNITS SITES
    [ "$3" -eq 1 ] || [ -n "$2" ] || refuse "--links together with --sites needs --units"
    set -- "$1" "${2:-49}"
    fewest=$(($2 - 1))
    most=$(($2 * ($2 - 1) / 2))
    [ "$1" -ge "$fewest" ] && [ "$1" -le "$most" ] || refuse "$2 units take $fewest to $most links, not $1"
}

check_options() { # PROGRAM OPTION..
    program=$1
    shift
    short='' hours='' links='' units='' sites=1
    while [ $# -gt 0 ]; do
        case "$program $1" in
        *' --help' | *' -h')
            usage
            exit 0
            ;;
        'site --short') short=yes ;;
        'site --short-beacons') ;;
        *)
            range=$(range_of "$program" "$1") || exit
            [ $# -gt 1 ] || refuse "$1 needs a number behind it"
            read_number "$1" $range "$2"
            case $1 in
            --hours) hours=$number ;;
            --links) links=$number ;;
            --units) units=$number ;;
            --sites) sites=$number ;;
            esac
            shift
            ;;
        esac
        shift
    done
    [ -z "$short" ] || [ -z "$hours" ] || refuse "--short and --hours do not go together"
    [ -z "$links" ] || check_links "$links" "$units" "$sites"
}
