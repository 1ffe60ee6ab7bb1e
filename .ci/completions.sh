#!/bin/sh
# Tries what bash, fish and zsh offer after words of the programs that `rt ci` built.
. "$(dirname "$0")/lib.sh"
mkdir "$work/bin"
for it in uritool urilines; do
    built=$root/crates/$it/out/$it
    [ -x "$built" ] || fail "$built is not built"
    ln -s "$built" "$work/bin/$it"
done
FLUENT_URI_OFFERS=$root/completions/offers PATH=$work/bin:$PATH
export FLUENT_URI_OFFERS PATH

# offers WANTED LINE: what the shell offers for the last word of the line, which may be empty.
offers() {
    must "$shell: $2" "$1" "$("in_$shell" "$2" | sort | paste -sd ' ')"
}
in_bash() {
    bash -c '. "$0"; IFS=" " read -ra COMP_WORDS <<< "$1"; [[ $1 != *" " ]] || COMP_WORDS+=("")
        COMP_CWORD=$((${#COMP_WORDS[@]} - 1)); _fluent_uri; printf "%s\n" "${COMPREPLY[@]}"' \
        "$root/completions/bash" "$1"
}
in_fish() {
    fish --no-config -c "source $root/completions/fish; complete -C '$1'" | cut -f 1
}
in_zsh() {
    zsh -fc '_describe() { print -l -- ${${(P)2}%%:*} }
        words=("${(@s: :)2}"); CURRENT=$#words; source $1' zsh "$root/completions/zsh" "$1"
}
for shell in bash fish zsh; do
    has $shell "completions of $shell" || continue
    offers 'iri uri' 'uritool resolve '
    offers '' 'uritool links '
    offers 'normalize' 'uritool --scheme-rules n'
    offers 'check' 'urilines c'
    offers 'uri-ref' 'urilines -0 normalize uri-'
    offers 'uri' 'urilines --field 2 resolve u'
    offers '--invert' 'urilines check --inv'
    offers '' 'urilines normalize --inv'
    offers '' 'urilines check uri '
    offers 'drop line stderr stop' 'urilines --errors '
done
must 'a value after =' '--errors=drop' "$("$FLUENT_URI_OFFERS" urilines --errors=d)"
must 'a value after the word =' drop "$("$FLUENT_URI_OFFERS" urilines --errors = d)"
must 'what a command does' "$(printf 'mend\tWrite what each line is mended to, as the link of a page')" \
    "$("$FLUENT_URI_OFFERS" urilines me)"
ends
