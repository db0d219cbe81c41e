printf '%s\n' 'arm few-drops' 'arm no-empty' 'forget all last=1' 'empty 1' | keepd --folder kept --drops 0
