//! Stands in for bpaf's src/buffer/html.rs, which was not at hand. Nothing of it is used.
