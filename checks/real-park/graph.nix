# The graph of real-park.sh: some forty derivations, built by busybox alone. Each sleeps for a moment, so that
# builds overlap.
let
  build = name: script: more: derivation ({
    inherit name;
    system = "x86_64-linux";
    builder = "/bin/sh";
    args = [ "-e" "-c" "${script}\nsleep 0.1" ];
  } // more);
  source = builtins.toFile "greeting" "hello";
  # five layers of six, each on two of the layer below
  layer = depth: below: builtins.genList
    (place: build "layer${toString depth}-${toString place}"
      "echo ${builtins.elemAt below place} ${builtins.elemAt below (if place == 0 then 5 else place - 1)} > $out" { })
    6;
  first = builtins.genList (place: build "layer0-${toString place}" "echo ${toString place} > $out" { }) 6;
  layers = builtins.foldl' (below: depth: layer depth below) first [ 1 2 3 4 ];
  outputs = build "outputs" "echo $out > $dev; echo ${source} > $out; echo alone > $lib" { outputs = [ "out" "dev" "lib" ]; };
  dropped = build "dropped" "read line < ${outputs.dev}; echo nothing > $out" { };
  fixed = build "fixed" "echo fixed > $out" {
    outputHashMode = "flat";
    outputHashAlgo = "sha256";
    outputHash = builtins.hashString "sha256" "fixed\n";
  };
  featured = build "featured" "echo featured > $out" { requiredSystemFeatures = [ "big-parallel" ]; };
  local = build "local" "echo ${featured} > $out" { preferLocalBuild = true; };
  other = build "other" "echo ${fixed} > $out" { system = "i686-linux"; };
  plain = build "plain" "echo ${dropped} ${outputs.lib} ${local} ${other} > $out" { };
in {
  all = build "all" "echo ${toString layers} ${plain} > $out" { };
  broken = build "broken" "exit 3" { };
  # a long build, which an agent is killed in
  slow = build "slow" "sleep 5; echo slow > $out" { };
}
