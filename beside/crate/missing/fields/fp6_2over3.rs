// In place of the crate's file. No command uses extension fields or emulated ones.
