" `:make` checks the crate, and `:make --only=` its forms and types alone.
compiler rattle
setlocal expandtab shiftwidth=4 textwidth=120 formatoptions-=t
