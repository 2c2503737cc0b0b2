# Completion of locale_tool for bash.
_locale_tool() {
  local word=${COMP_WORDS[COMP_CWORD]} previous=${COMP_WORDS[COMP_CWORD - 1]} command=${COMP_WORDS[1]}
  local commands='money time number info conv parse class upper lower check import explain run serial compare preview help'
  local classes='upper lower alpha digit space cntrl punct graph print xdigit blank alnum'
  local options='' words=''
  COMPREPLY=()
  # bash makes `--locale=de` three words
  case $word:$previous in
    =:*) word='' ;;
    *:=) previous=${COMP_WORDS[COMP_CWORD - 2]} ;;
  esac
  if [ "$COMP_CWORD" = 1 ]; then
    mapfile -t COMPREPLY < <(compgen -W "$commands -h --help -V --version" -- "$word")
    return
  fi
  case $previous in
    -l | --locale | --charmap)
      compopt -o filenames 2> /dev/null
      mapfile -t COMPREPLY < <(compgen -f -- "$word")
      return
      ;;
    --color)
      mapfile -t COMPREPLY < <(compgen -W 'always auto never' -- "$word")
      return
      ;;
    --path | -o | --output)
      compopt -o filenames 2> /dev/null
      mapfile -t COMPREPLY < <(compgen -d -- "$word")
      return
      ;;
  esac
  case $command in
    number) options='-l --locale --charmap --path --gnu --strict --read' ;;
    money | time | info | conv | parse | class | upper | lower) options='-l --locale --charmap --path --gnu --strict' ;;
    compare) options='--charmap --path --gnu' ;;
    preview) options='--charmap --path --gnu --html' ;;
    check) options='--charmap --path --summary' ;;
    import) options='--path -o --output --notes' ;;
    run | serial) options='--explain --strict' ;;
  esac
  case $command in
    info | conv | parse | check | import | explain | compare) options="$options --json" ;;
  esac
  case $command in
    time) [ "$previous" = time ] || words=now ;;
    info) words=$(locale_tool info 2> /dev/null | cut -d = -f 1) ;;
    class) words=$classes ;;
    explain) words=$(locale_tool explain 2> /dev/null | cut -d ' ' -f 1 | uniq) ;;
    help) words=$commands ;;
  esac
  case $word:$command in
    -*) words="$options --color -h --help" ;;
    *:check | *:import | *:run | *:serial | *:compare | *:preview)
      compopt -o filenames 2> /dev/null
      mapfile -t COMPREPLY < <(compgen -f -- "$word")
      return
      ;;
  esac
  mapfile -t COMPREPLY < <(compgen -W "$words" -- "$word")
}
complete -F _locale_tool locale_tool
