bes synth examples/grant.spec
