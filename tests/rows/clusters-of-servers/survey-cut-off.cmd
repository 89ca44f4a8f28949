verify --survey survey-cut-off.survey
