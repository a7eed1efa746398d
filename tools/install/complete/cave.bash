# Completions of cave for bash. tools/check/run completions compares them with the help.
_cave() {
    local -A has=(
        [' -']='--help,-h --version,-V'
        [' 1']='check play edit script cover map help'
        ['check -']='--bind,-b --print,-p --strict --known --output,-o --help,-h'
        ['check --bind']='FILE'
        ['check -b']='FILE'
        ['check --print']='maximum bindings names unused words doubts known'
        ['check -p']='maximum bindings names unused words doubts known'
        ['check --known']='FILE'
        ['check --output']='FILE'
        ['check -o']='FILE'
        ['check 1']='FILE'
        ['play -']='--bind,-b --seed,-s --print,-p --output,-o --help,-h'
        ['play --bind']='FILE'
        ['play -b']='FILE'
        ['play --seed']='N'
        ['play -s']='N'
        ['play --print']='transcript steps walk score state'
        ['play -p']='transcript steps walk score state'
        ['play --output']='FILE'
        ['play -o']='FILE'
        ['play 1']='FILE'
        ['play 2']='FILE'
        ['edit -']='--edit,-e --to --bind,-b --seed,-s --every --print,-p --strict --guarded --quiet,-q --report --output,-o --in-place --help,-h'
        ['edit --edit']='EDIT'
        ['edit -e']='EDIT'
        ['edit --to']='FILE'
        ['edit --bind']='FILE'
        ['edit -b']='FILE'
        ['edit --seed']='N'
        ['edit -s']='N'
        ['edit --every']='K'
        ['edit --print']='transcript play log undo guarded reports table steps walk score state'
        ['edit -p']='transcript play log undo guarded reports table steps walk score state'
        ['edit --report']='reports table'
        ['edit --output']='FILE'
        ['edit -o']='FILE'
        ['edit 1']='FILE'
        ['edit 2']='FILE'
        ['edit 3']='FILE'
        ['script -']='--guarded --group --output,-o --help,-h'
        ['script --output']='FILE'
        ['script -o']='FILE'
        ['script 1']='FILE'
        ['script 2']='FILE'
        ['cover -']='--bind,-b --seed,-s --print,-p --strict --known --output,-o --help,-h'
        ['cover --bind']='FILE'
        ['cover -b']='FILE'
        ['cover --seed']='N'
        ['cover -s']='N'
        ['cover --print']='counts texts rules known'
        ['cover -p']='counts texts rules known'
        ['cover --known']='FILE'
        ['cover --output']='FILE'
        ['cover -o']='FILE'
        ['cover 1']='FILE'
        ['cover *']='FILE'
        ['map -']='--bind,-b --seed,-s --seen --from --within --output,-o --help,-h'
        ['map --bind']='FILE'
        ['map -b']='FILE'
        ['map --seed']='N'
        ['map -s']='N'
        ['map --from']='PLACE'
        ['map --within']='N'
        ['map --output']='FILE'
        ['map -o']='FILE'
        ['map 1']='FILE'
        ['map *']='FILE'
        ['help -']=''
        ['help 1']='check play edit script cover map'
    )
    local -a before=("${COMP_WORDS[@]:1:COMP_CWORD - 1}")
    local command=${before[0]} place=1 option= ended= given=' ' words it
    COMPREPLY=()
    for it in "${before[@]:1}"; do
        [[ $it == '=' ]] && continue # To bash `--print=state` is three words.
        if [[ $option ]]; then
            option=
        elif [[ $ended || $it != -* ]]; then
            ((place++))
        else
            [[ $it == -- ]] && ended=yes
            option=${has["$command $it"]:+$it}
            [[ ${has["$command $it"]} == EDIT ]] || given+="$it "
        fi
    done
    words=${has["$command ${option:-$place}"]:-${has["$command *"]}}
    if [[ ! $option && ! $ended && (! $words || $2 == -*) ]]; then
        words=
        for it in ${has["$command -"]}; do
            [[ $given == *" ${it%,*} "* || $given == *" ${it#*,} "* ]] || words+=" ${it/,/ }"
        done
    fi
    [[ $words == FILE ]] && return
    compopt +o default 2> /dev/null
    [[ $words == [[:upper:]]* ]] || COMPREPLY=($(compgen -W "$words" -- "$2"))
}
complete -o default -F _cave cave
