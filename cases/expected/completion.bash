# Completes the words of unison in Bash: source <(unison completion bash)
_unison() {
  local at=1 current=${COMP_WORDS[COMP_CWORD]} previous=${COMP_WORDS[COMP_CWORD - 1]}
  local command= form= words= options=
  if [ "$COMP_CWORD" -gt 1 ] && [ "${COMP_WORDS[1]}" = why ]; then at=2; fi
  if [ "$COMP_CWORD" -gt "$at" ]; then command=${COMP_WORDS[at]}; fi
  if [ "$COMP_CWORD" -gt $((at + 1)) ]; then form=${COMP_WORDS[at + 1]}; fi
  case $command:$form in
  :) words="check lockstep run replay compare expand life-rule watch count settle cuts schedule explain naive verify page image dot generate import init info csv cells why completion manual" ;;
  check:*) options="" ;;
  lockstep:*) options="--rounds --from" ;;
  run:*) options="--rounds --workers --trace --from" ;;
  replay:*) options="--stop --from" ;;
  compare:*) options="--rounds --workers --from" ;;
  expand:*)
    words=""
    options="--const"
    ;;
  life-rule:*)
    words=""
    options=""
    ;;
  watch:*)
    words=""
    options="--rounds --every --format --only --changes --names --from --set --set-file --set-names --set-random --overlap --seed --threads --sequential --const --quiet"
    [ "$previous" = --format ] && words="report csv json"
    ;;
  count:*)
    words=""
    options="--rounds --every --field --until --sum --least --most --format --mean --over --quantiles --from --set --set-file --set-names --set-random --overlap --seed --threads --sequential --const --quiet"
    [ "$previous" = --format ] && words="csv json"
    ;;
  settle:*)
    words=""
    options="--limit --report --from --set --set-file --set-names --set-random --overlap --seed --threads --sequential --const --quiet"
    ;;
  cuts:*)
    words=""
    options="--rounds --below --format --names --from --set --set-file --set-names --set-random --overlap --seed --const"
    [ "$previous" = --format ] && words="text json"
    ;;
  schedule:sweeps | steps:sweeps)
    options="--stop --count --seed --refused --from --const"
    ;;
  schedule:random | steps:random)
    options="--stop --count --seed --refused --from --const"
    ;;
  schedule:slow-links | steps:slow-links)
    options="--stop --count --seed --refused --from --const"
    ;;
  schedule:starve | steps:starve)
    options="--names --stop --count --seed --refused --from --const"
    ;;
  schedule:ahead | steps:ahead)
    options="--names --stop --count --seed --refused --from --const"
    ;;
  schedule:central | steps:central)
    options="--stop --count --seed --refused --from --const"
    ;;
  schedule:synchronous | steps:synchronous)
    options="--stop --count --seed --refused --from --const"
    ;;
  schedule:distributed | steps:distributed)
    options="--share --stop --count --seed --refused --from --const"
    ;;
  schedule:round-robin | steps:round-robin)
    options="--stop --count --seed --refused --from --const"
    ;;
  schedule:adversary | steps:adversary)
    options="--names --stop --count --seed --refused --from --const"
    ;;
  schedule:write | steps:write)
    options="--names --from --const"
    ;;
  schedule:* | steps:*)
    words="sweeps random slow-links starve ahead central synchronous distributed round-robin adversary write"
    options=""
    ;;
  explain:* | tell:*)
    words=""
    options="--stop --names --counts --slots --from --const"
    ;;
  naive:*)
    words=""
    options="--stop --from --const"
    ;;
  verify:*)
    words=""
    options="--until-round --names --from --const --quiet"
    ;;
  page:*)
    words=""
    options="--rounds --every --steps --stop --naive --only --names --node-field --grid --from --const --viewer"
    ;;
  image:*)
    words=""
    options="--rounds --every --field --counts --grid --links --animate --frame-time --frames --colours --from --set --set-file --set-names --set-random --overlap --seed --const"
    ;;
  dot:*)
    words=""
    options="--rounds --field --names --colours --from --const"
    ;;
  generate:path | make:path)
    options="--seed --weights --packed"
    ;;
  generate:ring | make:ring)
    options="--seed --weights --packed"
    ;;
  generate:star | make:star)
    options="--seed --weights --packed"
    ;;
  generate:complete | make:complete)
    options="--seed --weights --packed"
    ;;
  generate:bipartite | make:bipartite)
    options="--seed --weights --packed"
    ;;
  generate:tree | make:tree)
    options="--arity --seed --weights --packed"
    ;;
  generate:hypercube | make:hypercube)
    options="--seed --weights --packed"
    ;;
  generate:grid | make:grid)
    options="--diagonals --seed --weights --packed"
    ;;
  generate:hex | make:hex)
    options="--seed --weights --packed"
    ;;
  generate:torus | make:torus)
    options="--diagonals --seed --weights --packed"
    ;;
  generate:random | make:random)
    options="--links --seed --weights --packed"
    ;;
  generate:gnp | make:gnp)
    options="--probability --seed --weights --packed"
    ;;
  generate:block | make:block)
    options="--within --between --seed --weights --packed"
    ;;
  generate:random-tree | make:random-tree)
    options="--seed --weights --packed"
    ;;
  generate:preferential | make:preferential)
    options="--links-each --seed --weights --packed"
    ;;
  generate:regular | make:regular)
    options="--degree --seed --weights --packed"
    ;;
  generate:small-world | make:small-world)
    options="--near --rewire --seed --weights --packed"
    ;;
  generate:* | make:*)
    words="path ring star complete bipartite tree hypercube grid hex torus random gnp block random-tree preferential regular small-world"
    options=""
    ;;
  import:edges | take:edges)
    options="--scale --drop-loops --keep-loops --parallel --names --header --numbers --columns --delimiter --directed --reverse --packed"
    [ "$previous" = --parallel ] && words="min max first keep"
    [ "$previous" = --delimiter ] && words="comma tab any"
    ;;
  import:matrix-market | take:matrix-market)
    options="--scale --drop-loops --keep-loops --parallel --undirected --directed --reverse --packed"
    [ "$previous" = --parallel ] && words="min max first keep"
    ;;
  import:dot | take:dot)
    options="--scale --drop-loops --keep-loops --parallel --names --undirected --packed"
    [ "$previous" = --parallel ] && words="min max first keep"
    ;;
  import:json | take:json)
    options="--scale --drop-loops --keep-loops --parallel --names --undirected --packed"
    [ "$previous" = --parallel ] && words="min max first keep"
    ;;
  import:* | take:*)
    words="edges matrix-market dot json"
    options=""
    ;;
  init:* | open:*)
    words=""
    options="--set --set-random --overlap --random --seed --cells --width --clear --names --model --phase --packed --quiet"
    [ "$previous" = --phase ] && words="0 1 2"
    ;;
  info:* | show:*)
    words=""
    options=""
    ;;
  csv:* | names:*)
    words=""
    options="--names --node-field"
    ;;
  cells:*)
    words=""
    options="--width --window --field --format --rule --quiet"
    [ "$previous" = --format ] && words="rle text"
    ;;
  why:*)
    words=""
    options=""
    ;;
  completion:bash)
    options=""
    ;;
  completion:*)
    words="bash"
    options=""
    ;;
  manual:*)
    words=""
    options=""
    ;;
  esac
  case $current in
  -*) COMPREPLY=($(compgen -W "$options --help" -- "$current")) ;;
  *) COMPREPLY=($(compgen -W "$words" -- "$current")) ;;
  esac
}
complete -o default -F _unison unison
