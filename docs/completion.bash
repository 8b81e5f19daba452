# Completion of osmpoly's words for bash: commands, options and the values that an option takes.
_osmpoly() {
  local word=${COMP_WORDS[COMP_CWORD]} before=${COMP_WORDS[COMP_CWORD - 1]} command=${COMP_WORDS[1]-} words=
  if [ "$COMP_CWORD" = 1 ]; then
    mapfile -t COMPREPLY < <(compgen -W "export coastline coast-filter certify locate sample" -- "$word")
    return
  fi
  case $command$before in
    export-f | export--output-format) words="geojson geojsonseq text" ;;
        export-u | export--add-unique-id | certify-u | certify--add-unique-id) words="counter type_id" ;;
    coastline-p | coastline--output-polygons) words="land water both none" ;;
    *)
      case $command in
        export) words="-f --output-format -o --output -O --overwrite -n --keep-untagged -u --add-unique-id -r --omit-rs -e --show-errors -E --stop-on-error --area-keys --linear-keys" ;;
        coastline) words="-c --close-distance -m --max-points -b --bbox-overlap -p --output-polygons --output -f --overwrite --cut-crossings" ;;
        coast-filter) words="-o --output -O --overwrite" ;;
        certify) words="-n --keep-untagged -u --add-unique-id --area-keys --linear-keys" ;;
        locate) words="-n --keep-untagged --area-keys --linear-keys -o --output -O --overwrite" ;;
      esac
      case $word in -*) ;; *) words= ;; esac
      ;;
  esac
  [ -z "$words" ] || mapfile -t COMPREPLY < <(compgen -W "$words" -- "$word")
}
complete -o default -F _osmpoly osmpoly
