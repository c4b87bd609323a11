s/switch (q.code) {/switch (q.code \& 255) {/
