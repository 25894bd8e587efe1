//! Stands in for bpaf's src/buffer/splitter.rs, which was not at hand. Nothing of it is used.
