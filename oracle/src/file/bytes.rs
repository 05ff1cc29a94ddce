include!(concat!(env!("ORIGINAL"), "/file/bytes.rs"));
