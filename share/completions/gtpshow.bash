# Completion of gtpshow for bash.
_gtpshow() {
  local word=${COMP_WORDS[COMP_CWORD]} command= each
  for each in "${COMP_WORDS[@]:1:COMP_CWORD-1}"; do
    case $each in
      decode | capture | replay | gateway | node | explain | help) command=$each && break ;;
    esac
  done
  local words='--help'
  case $command in
    decode) words='--user --all --json --places --interface --join --help' ;;
    capture) words='--brief --all --json --places --interface --faults --type --imsi --teid --address --control-port --user-port --help' ;;
    replay) words='--diagram --svg --pcap --json --help' ;;
    gateway | node | explain) words='--help' ;;
    help) words='decode capture replay gateway node explain' ;;
    '') words='decode capture replay gateway node explain help --help --version' ;;
  esac
  [ "${COMP_WORDS[COMP_CWORD - 1]}" != --interface ] || words='s5s8 s11 any'
  mapfile -t COMPREPLY < <(compgen -W "$words" -- "$word")
  case $command in
    capture | replay) [[ $word == -* ]] || mapfile -t COMPREPLY < <(compgen -f -- "$word") ;;
    explain) [[ $word == -* ]] || mapfile -t COMPREPLY < <(compgen -W 'cause element message extension' -- "$word") ;;
  esac
}
complete -o filenames -F _gtpshow gtpshow
