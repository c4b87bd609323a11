s/whole != 0 \&\& !sound_task/part(whole, KIND) != FREE \&\& !sound_task/
