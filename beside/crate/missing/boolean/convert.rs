// In place of the crate's file, which turns bits into bytes. No command does that.
