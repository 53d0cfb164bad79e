" Circuits end in .reo, scripts in .script, traces in .trace and proofs in .proof.
au BufRead,BufNewFile *.reo,*.script setfiletype reo
au BufRead,BufNewFile *.trace,*.proof setfiletype reotrace
