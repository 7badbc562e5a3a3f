//! A placeholder, so that cargo finds the name without a registry. Nothing is built over it.

compile_error!("the feature ipmi-rs-core needs the true crate: see README.md of ipmi-sel, \"Tests\"");
