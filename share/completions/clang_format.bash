# Completion of clang_format's words for bash, by the functions of bash-completion.

# The values of --style, and behind file: the files.
_clang_format_styles() {
  case $cur in
    file:*)
      local before=$cur
      cur=${cur#file:}
      compopt -o filenames 2>/dev/null
      _filedir
      COMPREPLY=("${COMPREPLY[@]/#/file:}")
      cur=$before
      ;;
    *)
      mapfile -t COMPREPLY < <(compgen -W 'LLVM Google WebKit Mozilla Microsoft file file:' -- "$cur")
      [[ ${#COMPREPLY[@]} -eq 1 && ${COMPREPLY[0]} == file: ]] && compopt -o nospace 2>/dev/null
      ;;
  esac
  __ltrim_colon_completions "$cur"
}

# The words that may still come: each stands once.
_clang_format_words() {
  local word given=" " left=()
  for word in "${words[@]:1:cword-1}"; do
    given+="${word%%=*} "
  done
  for word in --style --lines --states -i --dry-run --Werror --dump-config --generate; do
    [[ $given == *" $word "* ]] || left+=("$word")
  done
  mapfile -t COMPREPLY < <(compgen -W "${left[*]}" -- "$cur")
}

_clang_format() {
  local cur prev words cword split
  _init_completion -s -n : || return
  local at
  for ((at = 1; at < cword; at++)); do
    if [[ ${words[at]} == -- ]]; then
      _filedir
      return
    fi
  done
  case $prev in
    --style)
      _clang_format_styles
      return
      ;;
    --lines | --states | --generate)
      return
      ;;
  esac
  [[ $split == true ]] && return
  if [[ $cur == -* ]]; then
    _clang_format_words
  else
    _filedir
  fi
}

complete -F _clang_format clang_format
