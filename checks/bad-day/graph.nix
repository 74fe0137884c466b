# The graphs of bad-day.sh, built by busybox alone. SALT makes the paths of one case its own.
{ salt }:
let
  build = name: script: more: derivation ({
    name = "${name}-${salt}";
    system = "x86_64-linux";
    builder = "/bin/sh";
    args = [ "-e" "-c" script ];
  } // more);
  indexes = builtins.genList (place: place);
  # so many at once, and one on all of them
  wide = count: script: build "wide" "echo > $out"
    { parts = map (place: build "part${toString place}" "${script}; echo ${toString place} > $out" { }) (indexes count); };
  # so many, each on the one before
  chain = name: length: script: builtins.foldl' (below: place: build "${name}${toString place}" "${script}; echo ${toString below} > $out" { })
    "nothing" (indexes length);
  source = builtins.toFile "source-${salt}" "a source\n";
  tool = place: build "tool${toString place}" "echo tool > $out" { };
  # three layers of ten, each on two of the layer below, and one on all
  layer = below: depth: map (place: build "layer${toString depth}-${toString place}"
    "echo ${builtins.elemAt below place} ${builtins.elemAt below (if place == 0 then 9 else place - 1)} > $out" { }) (indexes 10);
  layers = builtins.foldl' layer (map (place: build "layer0-${toString place}" "echo ${toString place} > $out" { }) (indexes 10)) [ 1 2 ];
in {
  # 49 derivations
  many = wide 48 "sleep 0.1";
  # 100 derivations
  hundred = wide 99 "sleep 0.3";
  # a build that says something and takes a while, and what waits for it
  slow = build "after" "echo > $out" { part = build "slow" "echo a line; sleep 10; echo slow > $out" { }; };
  # one that takes longer than any case
  sleeper = build "sleeper" "echo a line; sleep 60; echo > $out" { };
  # five in a row and twelve beside, which take a moment each
  steps = build "steps" "echo > $out" { parts = [ (chain "step" 5 "sleep 1") (wide 11 "sleep 1") ]; };
  # a root that needs eight tools to be built, and refers to none of them
  tooled = build "tooled" "read line < $tool0; echo made > $out"
    (builtins.listToAttrs (map (place: { name = "tool${toString place}"; value = tool place; }) (indexes 8)));
  # 31 builds of no work
  none = build "none" "echo ${toString layers} > $out" { };
  # something that fails and says why in thirty lines, what depends on it, and some beside
  broken = build "depends" "echo > $out" {
    parts = [ (build "broken" "i=1; while [ $i -le 30 ]; do echo line $i; i=$((i + 1)); done; exit 3" { }) (chain "beside" 2 "sleep 0.2") ];
  };
  # what no machine has
  other = build "other" "echo > $out" { system = "aarch64-linux"; };
  featured = build "featured" "echo > $out" { requiredSystemFeatures = [ "kvm" ]; };
  parallel = build "parallel" "echo > $out" { requiredSystemFeatures = [ "big-parallel" ]; };
  # 24 MiB, by a shell that has no command
  big = build "big" "s=0123456789abcdef; for i in 0 1 2 3 4 5 6 7 8 9; do s=$s$s; done; i=0; while [ $i -lt 1536 ]; do echo $s || exit 7; i=$((i + 1)); done > $out" { };
  # one chain of eight among forty others, whose derivations stand behind them in no order of their own
  long = build "long" "echo > $out" { parts = [ (wide 40 "sleep 1") (chain "link" 8 "sleep 1") ]; };
  # what wants a source once something else is built
  wanting = build "wanting" "read line < ${source}; echo $line > $out" { before = build "before" "sleep 6; echo > $out" { }; };
  # builders that end in ways of their own, with --max-silent-time and `repeat`
  silent = build "silent" "sleep 30; echo > $out" { };
  mistaken = build "mistaken" "echo > $out" { outputHashAlgo = "sha256"; outputHash = builtins.hashString "sha256" "other"; };
  nothing = build "nothing" "echo a line" { };
  differs = build "differs" "read line < /proc/sys/kernel/random/uuid; echo $line > $out" { };
  # a failure below the longest chain, and 12 beside
  barred = build "barred" "echo > $out" {
    parts = [
      (build "upper" "echo > $out" { below = build "lower" "echo > $out" { below = build "fails" "exit 9" { }; }; })
      (wide 11 "sleep 1")
    ];
  };
  # one that needs nothing
  plain = build "plain" "echo > $out" { };
  sourced = build "sourced" "read line < ${source}; echo $line > $out" { };
}
