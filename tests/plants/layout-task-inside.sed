s/form->task = r->open == 0 \&\& /form->task = /
