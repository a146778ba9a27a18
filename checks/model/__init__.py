"""An independent model of what the program has to do, in Python. It shares nothing with the program.

    tree             the plain file tree, and what each request answers and changes in it
    messages         messages of 9P2000 as fields
    session          a client's session over a tree
    tree_files       trees as JSON
    frames           random frames, good and hostile
    comparison       a server beside the model, frame by frame
    vaults           writes and reads vaults
    planted          random trees as vaults, whole or damaged
    json_text        JSON by its grammar, with exact numbers
    key_files        what a secret and key files come to
    key_file_cases   random key files, good and broken

`vaults`, `planted`, `key_files` and `key_file_cases` need the Python package `cryptography` (Debian's `python3-cryptography`), for AES. The
programs beside them are checks (`rows`, `differ`, `key-files`) and the model as a server (`server`).
"""
