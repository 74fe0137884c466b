# A small project as a farm would build it: some twenty derivations for two systems, with the forms
# that a dispatcher meets. Nothing here is ever built; only the derivation texts are wanted.
let
  buildScript = ./sources/build.sh;
  appSource = ./sources/app.c;
  settings = builtins.toFile "settings.ini" "[paths]\nscript = ${buildScript}\n";

  step = system: name: attributes: derivation ({
    inherit name system;
    builder = "/bin/sh";
    args = [ "-e" buildScript ];
  } // attributes);

  x86 = step "x86_64-linux";
  arm = step "aarch64-linux";

  # Fixed-output derivations: one fetched by Nix itself, one by a script.
  patch = import <nix/fetchurl.nix> {
    url = "https://example.org/patches/portability.patch";
    sha256 = "0000000000000000000000000000000000000000000000000001";
  };
  archive = x86 "archive-1.0.tar.gz" {
    outputHashMode = "flat";
    outputHashAlgo = "sha256";
    outputHash = "0000000000000000000000000000000000000000000000000002";
    url = "https://example.org/archive-1.0.tar.gz";
    preferLocalBuild = true;
  };

  tools = x86 "bootstrap-tools" { src = archive; };
  toolsArm = arm "bootstrap-tools-aarch64" { src = archive; };

  compiler = x86 "compiler-2.1" {
    outputs = [ "out" "lib" "man" ];
    src = archive;
    patches = [ patch ];
    inherit tools;
    requiredSystemFeatures = [ "big-parallel" ];
  };
  compilerArm = arm "compiler-2.1-aarch64" {
    outputs = [ "out" "lib" ];
    src = archive;
    tools = toolsArm;
    requiredSystemFeatures = [ "big-parallel" ];
  };

  zlib = x86 "zlib-1.3" { outputs = [ "out" "dev" "static" ]; cc = compiler; };
  zlibArm = arm "zlib-1.3-aarch64" { outputs = [ "out" "dev" ]; cc = compilerArm; };
  tls = x86 "tls-3.0" { outputs = [ "out" "dev" ]; cc = compiler; zlib = zlib.dev; };
  database = x86 "database-15" { cc = compiler; libs = [ zlib.out tls.out ]; ldflags = "-L${compiler.lib}"; };
  app = x86 "app-0.9" { src = appSource; cc = compiler; libs = [ zlib tls database ]; inherit settings; };
  appArm = arm "app-0.9-aarch64" { src = appSource; cc = compilerArm; libs = [ zlibArm ]; };

  # Texts that need each of the five escapes, and bytes beyond ASCII.
  quoting = x86 "quoting" {
    quotes = "say \"yes\" and \\ no";
    lines = "first\nsecond\r\n\tindented";
    names = "Grüße, Ångström, 日本語, ∀x";
  };
  manual = x86 "manual" {
    preferLocalBuild = true;
    compilerManual = compiler.man;
    title = "The \"app\" manual";
  };
  website = x86 "website" { preferLocalBuild = true; inherit manual; };

  unitTests = x86 "unit-tests" { inherit app; requiredSystemFeatures = [ "benchmark" ]; };
  machineTest = x86 "machine-test" { inherit app database; requiredSystemFeatures = [ "kvm" "nixos-test" ]; };
  structured = x86 "structured-test" {
    __structuredAttrs = true;
    inherit app;
    requiredSystemFeatures = [ "kvm" ];
    preferLocalBuild = false;
    matrix = { sizes = [ 1 2 3 ]; label = "a \"quoted\" label"; };
  };
  image = x86 "disk-image" { inherit app website; requiredSystemFeatures = [ "kvm" ]; };
  imageArm = arm "disk-image-aarch64" { inherit appArm; requiredSystemFeatures = [ "kvm" ]; };
in
x86 "release-0.9" {
  contents = [ app appArm image imageArm manual website quoting unitTests machineTest structured ];
}
