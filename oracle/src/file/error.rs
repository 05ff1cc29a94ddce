include!(concat!(env!("ORIGINAL"), "/file/error.rs"));
