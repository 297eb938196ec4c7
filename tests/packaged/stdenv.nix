# The part of nixpkgs that the recipe of dist/packaging/nix needs, over this machine's compiler and make. The test has no channel of nix.
{ recipe, path }:

let
  stdenv = {
    cc.targetPrefix = "";
    buildPlatform.canExecute = host: true;
    hostPlatform = { };
    mkDerivation = it: derivation {
      inherit (it) src version makeFlags;
      name = "${it.pname}-${it.version}";
      system = builtins.currentSystem;
      PATH = path;
      builder = "/bin/sh";
      args = [ "-euc" ''
        cp -r "$src" work
        chmod -R u+w work
        cd work
        make -j 2 CFLAGS=-O0 $makeFlags
        ${if it.doCheck then "make check CFLAGS=-O0 $makeFlags" else ""}
        make install CFLAGS=-O0 $makeFlags
      '' ];
    };
  };
  lib.licenses = { mit = "MIT"; asl20 = "Apache-2.0"; };
in import recipe { inherit lib stdenv; }
