/^struct tupehiwo_answer baseline_perform(/,/^}/s/^            if (starting)$/        if (0)/
