cite
