bes synth examples/pump.spec
