# What capture.sh builds: one derivation for each way in which a build ends.
let
  build = name: script: more: derivation ({
    inherit name;
    system = "x86_64-linux";
    builder = "/bin/sh";
    args = [ "-e" "-c" script ];
  } // more);
  source = builtins.toFile "a-source" "a source";
  # writes so many times 16 KiB
  fill = count: "s=0123456789abcdef; for i in 0 1 2 3 4 5 6 7 8 9; do s=$s$s; done; i=0; while [ $i -lt ${count} ]; do echo $s || exit 7; i=$((i + 1)); done > $out";
in {
  status = build "status" "echo a line; exit 3" { };
  signal = build "signal" "echo a line; ulimit -t 1; while :; do :; done" { };
  timeout = build "timeout" "echo a line; sleep 60; echo > $out" { };
  silent = build "silent" "echo a line; sleep 60; echo > $out" { };
  hash = build "hash" "echo other > $out" {
    outputHashMode = "flat";
    outputHashAlgo = "sha256";
    outputHash = builtins.hashString "sha256" "this\n";
  };
  missing = build "missing" "echo a line" { };
  good = build "good" "echo good > $out" { };
  slow = build "slow" "echo a line; sleep 8; echo slow > $out" { };
  # 24 MiB, by a shell that has no command
  big = build "big" "echo a line; ${fill "1536"}" { };
  # 240 MiB
  large = build "large" "echo a line; ${fill "15360"}" { };
  gone = build "gone" "echo ${builtins.toFile "gone-source" "gone"} > $out" { };
  # builders whose own words are those of a machine at fault, or of another's fault
  liar = build "liar" "echo error: unexpected end-of-file; echo \"error: writing to file: No space left on device\"; exit 4" { };
  feature = build "feature" "echo > $out" { requiredSystemFeatures = [ "kvm" ]; };
  # a builder that isn't there
  nothing = build "nothing" "" { builder = "/no/such/builder"; };
  # forbidden reference
  forbidden = build "forbidden" "echo ${source} > $out" { allowedReferences = [ ]; };
}
