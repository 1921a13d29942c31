#compdef gtpshow
# Completion of gtpshow for zsh.
_gtpshow() {
  local -a commands
  commands=(
    'decode:shows one datagram, or its first fault'
    'capture:shows the GTP datagrams of a packet capture'
    'replay:runs a scenario between two gateways, and reports what comes of it'
    'gateway:runs one gateway behind lines of JSON'
    'node:runs a gateway for each of many peers, behind lines of JSON'
    'explain:says what a code, a cause or a type means'
    'help:prints help'
  )
  if (( CURRENT == 2 )); then
    _describe 'command' commands
    _arguments '--help[print help]' '--version[print version]'
    return
  fi
  case $words[2] in
    decode) _arguments '--user[the datagram is of the user plane]' '--all[show each element that is whole]' '--json[show a JSON object a line]' '--places[with --all --json, show octets and places]' '--interface[with --all, judge by this interface]:interface:(s5s8 s11 any)' '--join[join lines of plain hexadecimal]' '--help[print help]' ':octets in hexadecimal:' ;;
    capture) _arguments '--brief[show one line a datagram]' '--all[show each element that is whole]' '--json[show a JSON object a line]' '--places[with --all --json, show octets and places]' '--interface[with --all, judge by this interface]:interface:(s5s8 s11 any)' '--faults[show only datagrams at fault]' '--type[show only messages of this type]:name:' '--imsi[show only messages that tell this subscriber]:digits:' '--teid[show only messages with this TEID]:teid:' '--address[show only datagrams from or to this address]:address:' '--control-port[a port of control datagrams]:port:' '--user-port[a port of user datagrams]:port:' '--help[print help]' ':capture:_files' ;;
    replay) _arguments '--diagram[draw the run as a sequence diagram]' '--svg[draw the same diagram as a picture]' '--pcap[write the run as a packet capture]' '--json[show a JSON object a line]' '--help[print help]' ':scenario:_files' ;;
    gateway | node) _arguments '--help[print help]' ;;
    explain) _arguments '--help[print help]' ':code:(cause element message extension)' ':type:' ;;
  esac
}
_gtpshow "$@"
