verify --survey survey-out-of-turn.survey
