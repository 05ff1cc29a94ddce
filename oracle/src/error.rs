include!(concat!(env!("ORIGINAL"), "/error.rs"));
