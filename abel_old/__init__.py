"""Old ABEL-HDL sources, rewritten into the language of `abel`."""
