" `:make` checks the crate, and `:make --only=` its forms and types alone.
compiler rattle
setlocal expandtab shiftwidth=2 textwidth=120 formatoptions-=t
